"""Tests of the built programs: answers, files, crashes, limits and the commands of the pages."""
