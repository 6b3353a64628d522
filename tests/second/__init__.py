"""A second calculation of the guideline routine in exact fractions, written from the specification alone."""
