"""The parts of `tools/maildir`, which turns a maildir tree into scripts and back.

`command` runs `import_tree` or `export_tree`. Both build on `language`, what a script can say, and
on `folder_names`, which directory a folder's name is, and tell by `report` what they left out.
"""
