"""Callers that the pages quote and the tests run."""
