"""The program ffosolve-many, for Python 3.10 or later. It never calls libffosolve."""
