//! Stands in for intel-mkl-src, which the text only links.
