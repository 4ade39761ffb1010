// Who may look at a photo.
permit (principal, action, resource)
when { resource.owner == principal }; // and nobody else
