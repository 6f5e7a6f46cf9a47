"""Tests of the front for people, in web/."""
