"""A store's file, read by docs/FORMAT.md alone and never written.

`pages` finds the records' bytes, `records` decodes them, `values` prints what they hold, and `store` answers questions
about the whole: what stands in a workspace, who changed it, and what a merge would find in conflict.
"""
