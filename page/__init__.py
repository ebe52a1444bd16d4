"""The files that a page is packed from: a template, its style, and modules of JavaScript."""
