"""The independent program: a second implementation of the cabinet's software.

It is written from the words of the scope paper alone, to be compared with the
proved one. Nothing here is fast or clever; each module says what the paper
says, in its order.
"""
