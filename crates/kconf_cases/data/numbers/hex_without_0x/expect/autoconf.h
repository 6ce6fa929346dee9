/*
 * Automatically generated file; DO NOT EDIT.
 * Main menu
 */
#define CONFIG_X 0xff
