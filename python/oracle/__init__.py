"Readings of the rules that share nothing with what is shipped: tests compare it with them."
import sys

# listings have numbers of up to 100,000 digits above and below the line, and what comes of them is longer
if hasattr(sys, "set_int_max_str_digits"):
    sys.set_int_max_str_digits(0)
