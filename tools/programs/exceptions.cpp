// Exceptions that are thrown, caught, thrown again and passed on by destructors.
#include <exception>
#include <stdexcept>
#include <string>
#include <vector>
#include <iostream>
#include <functional>
#include <memory>
struct A{ std::string s; ~A(){ std::cout<<s; } };
int f(int n){ A a{std::to_string(n)}; if(n==0) throw std::runtime_error("zero"); try { return f(n-1)+1; } catch(const std::logic_error&){ return 1; } catch(const std::string&s){ throw std::invalid_argument(s); } }
int g(std::function<int(int)> h,int n){ try { try { return h(n); } catch(const std::runtime_error&e){ A b{e.what()}; if(n>3) throw; throw std::string("x"); } } catch(...){ auto p=std::current_exception(); if(n>4) std::rethrow_exception(p); throw; } }
int main(int c,char**v){ std::vector<std::unique_ptr<A>> k; for(int i=0;i<c;i++) k.push_back(std::make_unique<A>()); try { return g(f,c)+g([](int i){ if(i) throw i; return i;},c); } catch(int i){ return i; } catch(std::exception&e){ std::cerr<<e.what(); } return 0; }
