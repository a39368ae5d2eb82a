"Listings: read, compared with their jobs, written."
