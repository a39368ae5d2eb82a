#!/usr/bin/env python3
"mps360.cli.plot_parametric, which Python keeps compiled, does the work; plot_parametric.py --help has more"
import os, sys

HERE = os.path.dirname(os.path.realpath(__file__))
sys.path.insert(0, next(path for path in (HERE + "/python", os.path.dirname(HERE) + "/python") if os.path.isdir(path)))
from mps360.cli.plot_parametric import main

sys.exit(main())
