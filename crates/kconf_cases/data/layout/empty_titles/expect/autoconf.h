/*
 * Automatically generated file; DO NOT EDIT.
 * 
 */
