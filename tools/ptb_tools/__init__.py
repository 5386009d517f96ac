"""The tools of ptb: adapt, outcomes, resume and shares. They need Python 3.9 or later and nothing else."""

VERSION = ""  # ./install writes it; in the repository tools/version prints it
