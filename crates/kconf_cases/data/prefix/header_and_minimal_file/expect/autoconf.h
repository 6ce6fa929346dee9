/*
 * Automatically generated file; DO NOT EDIT.
 * Main menu
 */
#define BR2_MODULES 1
#define BR2_A 1
#define BR2_B_MODULE 1
#define BR2_S "s"
