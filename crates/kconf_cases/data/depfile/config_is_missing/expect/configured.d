.config: \
 ./Kconfig \
 none

./Kconfig:

none:
