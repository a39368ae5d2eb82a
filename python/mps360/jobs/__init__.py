"Jobs of 80-column cards: written of a model, or read."
