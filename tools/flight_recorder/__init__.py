"""The tools beside the recorder, a module for each subject.

They read and write the formats of docs/FORMATS.md. They aren't proved: tests/flight/ tries them.
"""
