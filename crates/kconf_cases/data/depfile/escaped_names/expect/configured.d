.config: \
 ./Kconfig \
 ./sub\ folder/Kconfig%1 \
 a\#b$$c.cfg

./Kconfig:

./sub\ folder/Kconfig\%1:

a\#b$$c.cfg:
