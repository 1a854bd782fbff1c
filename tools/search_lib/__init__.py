"""Jobs of ours beside other programs, searched for a story in which a job breaks what docs/LAW.md says that it keeps."""
