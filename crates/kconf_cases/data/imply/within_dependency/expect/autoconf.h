/*
 * Automatically generated file; DO NOT EDIT.
 * Main menu
 */
#define CONFIG_MODULES 1
#define CONFIG_FOO 1
#define CONFIG_BAR_MODULE 1
#define CONFIG_BAZ_MODULE 1
