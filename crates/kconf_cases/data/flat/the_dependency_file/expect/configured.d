.config: \
 dir/Kconfig \
 dir/lib/Kconfig \
 dir/net/Kconfig

dir/Kconfig:

dir/lib/Kconfig:

dir/net/Kconfig:
