.config: \
 ./Kconfig

./Kconfig:
