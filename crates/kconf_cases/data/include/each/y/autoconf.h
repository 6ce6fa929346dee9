CONFIG_S=y
#include <c.config>
CONFIG_B=y
