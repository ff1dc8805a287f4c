# Prints the picture of a plan, or of a refusal, as an SVG file.

END { print_picture() }
