"""Tests of the service: what requests over HTTP are answered, and what becomes of peers."""
