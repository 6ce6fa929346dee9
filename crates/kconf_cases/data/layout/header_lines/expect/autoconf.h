/*
 * Automatically generated file; DO NOT EDIT.
 * Main menu
 */
#define CONFIG_MODULES 1
#define CONFIG_B_MODULE 1
#define CONFIG_C "a\"b\\c"
#define CONFIG_D -5
#define CONFIG_E 0x1F
#define CONFIG_F 0X1F
#define CONFIG_G ""
