permit (principal, action, resource)
when { resource.owner = principal };
forbid (principal, action, resource)
when { principal.isIpv5() };
