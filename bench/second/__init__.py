"""A second evaluation of scripts, apart from the program: from its pages, in exact fractions, cell by cell."""
