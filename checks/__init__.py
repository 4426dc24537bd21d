"""Scripts that try, hold and measure this repository: everything.py is ./test, common.py has what they share."""
