permit (principal, action, resource)
when { geo::here(context.place).near(1) };
