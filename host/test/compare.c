/* Comparing devices and naming the first field that differs. */
#include "test/compare.h"

#include "test/check.h"
#include "test/fields.h"
#include "test/scope.h"

bool expect_device(const struct pod_device *wanted, const struct pod_device *found, const char *what)
{
    if (same_device(wanted, found)) {
        return true;
    }
    const size_t field = field_differing(wanted, found);
    return expect(field_get(wanted, field), field_get(found, field), "%s: %s", what, field_name(field));
}

bool expect_meaning(const struct pod_device *wanted, const struct pod_device *found, const char *what)
{
    const struct pod_device left = meant_by(*wanted), right = meant_by(*found);
    return expect_device(&left, &right, what);
}
