/*
 * Views, messages and end-points of the library as the model's, and back: field
 * by field, what no step reads included.
 */
#ifndef CONVERT_H
#define CONVERT_H

#include "nhuoseng.h"
#include "endpoint.h"

struct model_view model_view_of(const nh_view *v);
nh_view view_of_model(const struct model_view *v);

struct model_message model_message_of(const nh_message *m);
nh_message message_of_model(const struct model_message *m);

void model_of_endpoint(const nh_endpoint *e, struct model_endpoint *m);
void endpoint_of_model(const struct model_endpoint *m, nh_endpoint *e);

#endif
