"""Sheets of CSV, and the values in their cells: read and written as a spreadsheet of this or that country has them.

`files` finds the letters and the rows of a file, and `forms` what a cell says: a number, a text, a time or nothing.
"""
