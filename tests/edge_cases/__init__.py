"""The cases of tests/edge, a module for each theme, and what they share.

`harness` has what a case is, `running`, `terminals` and `tracing` how a program is run, `system`
what is taken of the system and given back, `rooms` the folders and images, and `needs` what a case
can't be tried without.
"""
