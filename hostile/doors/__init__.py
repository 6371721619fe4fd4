"""Rounds that are drawn, and the doors that each of them goes through: hostile/doors.py has the words."""
