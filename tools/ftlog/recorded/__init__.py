"""Recordings of kernels by kernel/ftrec.c: how they are made, and what ftjudge is told of them."""
