"""The commands of `vp`, one file a group."""
