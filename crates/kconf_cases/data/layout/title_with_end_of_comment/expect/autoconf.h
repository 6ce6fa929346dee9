/*
 * Automatically generated file; DO NOT EDIT.
 * a */ b
 */
