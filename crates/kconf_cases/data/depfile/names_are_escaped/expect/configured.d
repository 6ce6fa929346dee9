.config: \
 ./Kconfig \
 a\ b.cfg \
 c\#d.cfg \
 e\:f.cfg \
 g$$h.cfg \
 i\j.cfg \
 k\\\ l.cfg

./Kconfig:

a\ b.cfg:

c\#d.cfg:

e\:f.cfg:

g$$h.cfg:

i\j.cfg:

k\\\ l.cfg:
