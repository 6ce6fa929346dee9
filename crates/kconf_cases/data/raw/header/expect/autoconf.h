/*
 * Automatically generated file; DO NOT EDIT.
 * Main menu
 */
#define CONFIG_S "a"b\c"
#define CONFIG_T "d"e\f"
#define CONFIG_N 7
