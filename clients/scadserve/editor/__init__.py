"""The language server: its protocol, the open texts, and what an editor is told about them."""
