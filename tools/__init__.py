"""Scripts that build, prove and release: README.md."""
