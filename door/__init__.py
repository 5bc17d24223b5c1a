"""The front door: what the script `osp` does."""
