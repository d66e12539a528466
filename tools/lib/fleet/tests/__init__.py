"""Tests of what is read of the output of Ansible."""
