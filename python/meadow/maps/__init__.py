"""Pictures in SVG: the map of a sheet and its answer (drawing puts it together from shades, signs, contours, guessed ground and a legend), the
map of how often squares drowned (often), and the display panel of level boards (staffs)."""
