"""The reference model: the controller and the console lines in Python, made from documents 01 and 02 and our
decisions.
"""
