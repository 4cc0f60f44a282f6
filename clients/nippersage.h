/* The name that nippersage_client.h had until 0.2.0, for this release: the library has a header of this name, too. */
#ifndef NIPPERSAGE_CLIENT_H
#pragma message("clients/nippersage.h is nippersage_client.h now, and goes with the next release")
#endif
#include "nippersage_client.h"
