"""Reading what the program prints: result lines, and reports with their summary and end lines.

The two formats stand here once, for the tools report, verdict, watch and recount. Both are read by blocks of lines, and texts
that are not UTF-8 are kept (their bytes as surrogates), so that they are the same in both files.
"""
