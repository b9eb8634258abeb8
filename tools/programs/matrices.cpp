// Decompositions of matrices by Eigen, with exceptions and strings.
#include <Eigen/Dense>
#include <iostream>
#include <vector>
#include <map>
#include <string>
#include <stdexcept>
#include <algorithm>
using namespace Eigen;
int main(int argc,char**argv){
  try {
    MatrixXf a=MatrixXf::Random(20+argc,20+argc); MatrixXd b=MatrixXd::Random(12,12);
    VectorXf x=a.colPivHouseholderQr().solve(VectorXf::Ones(20+argc));
    SelfAdjointEigenSolver<MatrixXd> es(b+b.transpose());
    JacobiSVD<MatrixXd> svd(b,ComputeThinU|ComputeThinV);
    MatrixXi c=(a*100).cast<int>(); MatrixXcd z=b.cast<std::complex<double>>();
    std::cout<<x.sum()<<es.eigenvalues().sum()<<svd.singularValues()<<c.sum()<<z.determinant()<<(b.inverse()*b).trace()<<std::endl;
    if(argc>5) throw std::runtime_error("many");
    std::map<std::string,int> m; for(int i=0;i<argc;i++) m[argv[i]]++;
    if(m.at("x")) throw 3;
  } catch(const std::out_of_range&e){ std::cerr<<e.what(); return 1; }
  catch(int i){ return i; }
  catch(...){ throw; }
}
