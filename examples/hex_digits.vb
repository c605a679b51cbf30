' A number whose digits aren't those of its base.

x = &HG
