/*
 * Automatically generated file; DO NOT EDIT.
 * Main menu
 */
#define X_A 1
