"""The parts of ptb-adapt: a listing in another dialect of BASIC becomes a program in Palo Alto Tiny BASIC."""
