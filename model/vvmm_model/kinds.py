"""The kinds of a guest's step, in the order in which a summary tells them."""

PLAIN, SENSITIVE, FAULT, INTERRUPT, MODIFY, IDLE, STOPPED = range(7)
