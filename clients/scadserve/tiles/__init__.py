"""Designs of any size, cut into tiles that are made one by one and put together again."""
